INSERT INTO cell VALUES(0, x'ffffffffffffffff', x'ffffffffffffffff'); INSERT INTO cell VALUES(0, x'0000000000000100', x'0000000000000001');
