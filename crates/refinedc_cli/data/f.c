[[rc::returns("7 @ int<i32>")]] int f(void) { return 7; }
