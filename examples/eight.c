[[rc::returns("8 @ int<i32>")]]
int eight(void) { return 7; }

// `refinedc check` refuses this file at line 2, column 19, with `unsolved 7 = 8`: the function returns another value
// than it is declared to.
