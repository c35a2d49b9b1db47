CREATE TABLE note(a);
