// An element of an array, by its number.
#include <stddef.h>

[[rc::parameters("xs: list", "i: int", "p: loc")]]
[[rc::args("p @ &own<xs @ array<i32>>", "i @ int<size_t>")]]
[[rc::requires("{i < len(xs)}")]]
[[rc::returns("{nth(xs, i)} @ int<i32>")]]
[[rc::ensures("own p : xs @ array<i32>")]]
int get(int *a, size_t i) { return a[i]; }
