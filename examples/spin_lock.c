// A count that threads share, behind a lock that is taken by trying until it is free.
#include <stdatomic.h>
#include <stdbool.h>

struct [[rc::refined_by("at: loc")]] counter {
  [[rc::field("atomicbool<{}, {own at : int<u32>}>")]] atomic_bool taken;
  [[rc::field("at @ ptr")]] unsigned *count;
};

[[rc::parameters("here: loc", "at: loc")]]
[[rc::args("here @ &shr<at @ counter>")]]
void count_up(struct counter *counter)
{
  [[rc::constraints("{true}")]]
  while (atomic_exchange(&counter->taken, true)) {
  }
  if (*counter->count != 4294967295u) {
    ++*counter->count;
  }
  atomic_store(&counter->taken, false);
}
