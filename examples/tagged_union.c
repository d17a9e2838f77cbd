// A number of one of two sizes, and a tag that says which.
union number {
  int small;
  long large;
};

struct [[rc::refined_by("t: int")]] tagged {
  [[rc::field("t @ int<i32>")]] int tag;
  [[rc::field("variant<t, union number, int<i32>, int<i64>>")]] union number value;
};

[[rc::parameters("t: int", "p: loc")]]
[[rc::args("p @ &own<t @ tagged>")]]
[[rc::returns("int<i32>")]]
[[rc::ensures("own p : t @ tagged")]]
int small_or_zero(struct tagged *s) {
  if (s->tag == 0) {
    return s->value.small;
  }
  return 0;
}
