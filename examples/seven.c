[[rc::returns("7 @ int<i32>")]]
int seven(void) { return 7; }

// `refinedc check` answers this file with eleven lines, `accepted` last: the function returns the 7 that it is declared
// to.
