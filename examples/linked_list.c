// Numbers in a list of nodes, which is reversed in place, and gets nodes in front.
#include <stddef.h>

typedef struct [[rc::refined_by("numbers: list")]]
[[rc::ptr_type("chain: {numbers != []} @ optional<&own<...>, null>")]]
[[rc::exists("first: int", "others: list")]]
[[rc::constraints("{numbers = first :: others}")]]
node {
  [[rc::field("first @ int<i32>")]] int number;
  [[rc::field("others @ chain")]] struct node *next;
} *chain;

[[rc::parameters("numbers: list")]]
[[rc::args("numbers @ chain")]]
[[rc::returns("{rev(numbers)} @ chain")]]
chain reverse(chain rest)
{
  chain done = NULL;
  [[rc::exists("front: list", "back: list")]]
  [[rc::inv_vars("rest: back @ chain", "done: front @ chain")]]
  [[rc::constraints("{numbers = rev(front) ++ back}")]]
  while (rest != NULL) {
    chain next = rest->next;
    rest->next = done;
    done = rest;
    rest = next;
  }
  return done;
}

[[rc::parameters("numbers: list", "number: int")]]
[[rc::args("number @ int<i32>", "&own<uninit<struct node>>", "numbers @ chain")]]
[[rc::returns("{number :: numbers} @ chain")]]
chain push(int number, struct node *spare, chain numbers)
{
  spare->number = number;
  spare->next = numbers;
  return spare;
}
