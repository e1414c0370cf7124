// The ring of bench/run.sh and of bench/hops.sh in CAF, the C++ Actor Framework: N actors (4,000, or N of the environment); each is kicked with 7 and passes a token on until it is 0: 9N messages are taken. Where the environment has TOKEN, one alone is kicked, with that number.
#include <caf/all.hpp>
#include <chrono>
#include <iostream>
using namespace caf;
CAF_BEGIN_TYPE_ID_BLOCK(ring, first_custom_type_id)
CAF_ADD_ATOM(ring, , next_a, "next_a")
CAF_ADD_ATOM(ring, , kick_a, "kick_a")
CAF_ADD_ATOM(ring, , tok_a, "tok_a")
CAF_ADD_ATOM(ring, , done_a, "done_a")
CAF_END_TYPE_ID_BLOCK(ring)
struct st { actor next; };
behavior node(stateful_actor<st>* self, actor parent) {
  return {[=](next_a, actor n) { self->state.next = n; },
          [=](kick_a, int32_t k) { self->send(self->state.next, tok_a_v, k); },
          [=](tok_a, int32_t k) {
            if (k > 0) self->send(self->state.next, tok_a_v, k - 1);
            else self->send(parent, done_a_v);
          }};
}
void caf_main(actor_system& sys) {
  int n = 4000;
  if (const char* e = getenv("N")) n = atoi(e);
  scoped_actor me{sys};
  auto t0 = std::chrono::steady_clock::now();
  std::vector<actor> v;
  for (int i = 0; i < n; ++i) v.push_back(sys.spawn(node, actor_cast<actor>(me)));
  for (int i = 0; i < n; ++i) me->send(v[i], next_a_v, v[(i + 1) % n]);
  auto t1 = std::chrono::steady_clock::now();
  const char* token = getenv("TOKEN");
  int kicked = token ? 1 : n, number = token ? atoi(token) : 7;
  for (int i = 0; i < kicked; ++i) me->send(v[i], kick_a_v, int32_t{number});
  int left = kicked;
  me->receive_while([&] { return left > 0; })([&](done_a) { --left; });
  auto t2 = std::chrono::steady_clock::now();
  using us = std::chrono::microseconds;
  std::cout << "ring " << n << ": spawn " << std::chrono::duration_cast<us>(t1 - t0).count() << " us, run "
            << std::chrono::duration_cast<us>(t2 - t1).count() << " us, " << (number + 2) * kicked << " messages\n";
  for (auto& a : v) me->send_exit(a, exit_reason::user_shutdown);
}
CAF_MAIN(caf::id_block::ring)
