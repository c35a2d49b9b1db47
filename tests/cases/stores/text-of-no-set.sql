UPDATE meta SET txt = 'lynx 1' WHERE id = 3;
