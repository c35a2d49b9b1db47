UPDATE cell SET tab = 1;
