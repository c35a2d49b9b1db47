UPDATE meta SET txt = '2' WHERE id = 2;
