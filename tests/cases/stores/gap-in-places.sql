DELETE FROM entry WHERE place = 0;
