UPDATE entry SET body = CAST(body || x'00' AS BLOB) WHERE place = 1;
