UPDATE meta SET txt = 'lynx store 2' WHERE id = 1;
