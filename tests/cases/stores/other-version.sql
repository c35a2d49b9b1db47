UPDATE meta SET txt = 'lynx store 3' WHERE id = 1;
