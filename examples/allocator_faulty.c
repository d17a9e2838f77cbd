// A pool of free bytes, from whose end memory is handed out. Here a `goto` leads to the only `return`.
#include <stddef.h>

struct [[rc::refined_by("free: nat")]] pool {
  [[rc::field("free @ int<size_t>")]] size_t free;
  [[rc::field("&own<uninit<free>>")]] unsigned char *start;
};

[[rc::parameters("free: nat", "wanted: nat", "at: loc")]]
[[rc::args("at @ &own<free @ pool>", "wanted @ int<size_t>")]]
[[rc::returns("{wanted <= free} @ optional<&own<uninit<wanted>>, null>")]]
[[rc::ensures("own at : {wanted <= free ? free - wanted : free} @ pool")]]
void *take(struct pool *pool, size_t wanted)
{
  void *taken = NULL;
  if (pool->free < wanted) {
    goto out;
  }
  pool->free = pool->free - wanted;
  taken = pool->start + pool->free;
out:
  return taken;
}
