// The two marks: system calls that Linux does not have. They leave nothing but the count behind.
enum { START = 7000, STOP = 7001 };
