// A pool of free bytes: memory is handed out from its end, as long as enough is left.
#include <stddef.h>

struct [[rc::refined_by("free: nat")]] pool {
  [[rc::field("free @ int<size_t>")]] size_t free;
  [[rc::field("&own<uninit<free>>")]] unsigned char *start;
};

[[rc::parameters("free: nat", "wanted: nat", "at: loc")]]
[[rc::args("at @ &own<free @ pool>", "wanted @ int<size_t>")]]
[[rc::returns("{wanted <= free} @ optional<&own<uninit<wanted>>, null>")]]
[[rc::ensures("own at : {wanted <= free ? free - wanted : free} @ pool")]]
void *take(struct pool *pool, size_t wanted)
{
  if (pool->free < wanted) {
    return NULL;
  }
  pool->free = pool->free - wanted;
  return pool->start + pool->free;
}
