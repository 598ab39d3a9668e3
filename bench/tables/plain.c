// The tables of a host and of a gateway in plain C, by hash maps: the same operations, the same looks, the same sums as crates/bench_tables.
#include <stdint.h>
#include <stdio.h>
#include <stdlib.h>
#include <string.h>

#define BASE 0x0a000000u
#define GATEWAYS 4

struct map { uint64_t *keys; uint32_t *values; size_t size, count; };

static size_t slot(const struct map *m, uint64_t key) {
  size_t at = (key * 0x9e3779b97f4a7c15u) >> 20 & (m->size - 1);
  while (m->keys[at] && m->keys[at] != key + 1) at = (at + 1) & (m->size - 1);
  return at;
}
static uint32_t get(const struct map *m, uint64_t key, uint32_t none) {
  if (!m->size) return none;
  size_t at = slot(m, key);
  return m->keys[at] ? m->values[at] : none;
}
static void put(struct map *m, uint64_t key, uint32_t value) {
  if (2 * (m->count + 1) > m->size) {
    struct map n = {0, 0, m->size ? 2 * m->size : 16, m->count};
    n.keys = calloc(n.size, sizeof *n.keys);
    n.values = calloc(n.size, sizeof *n.values);
    for (size_t i = 0; i < m->size; i++)
      if (m->keys[i]) { size_t at = slot(&n, m->keys[i] - 1); n.keys[at] = m->keys[i]; n.values[at] = m->values[i]; }
    free(m->keys); free(m->values);
    *m = n;
  }
  size_t at = slot(m, key);
  if (!m->keys[at]) { m->keys[at] = key + 1; m->count++; }
  m->values[at] = value;
}
static void drop(struct map *m) { free(m->keys); free(m->values); }

struct prefix { uint32_t address; uint8_t length; };
struct rule { uint32_t number; uint16_t priority; uint8_t side, allow, sealed; int16_t protocol; struct prefix source, destination; uint16_t slow, shigh, dlow, dhigh; };
struct route { uint32_t number; struct prefix prefix; uint8_t kind; uint32_t peer; };
struct order { uint32_t net, ip, to_net, to_host, until; };
struct op { uint8_t kind; union { uint32_t net; struct { uint32_t vm, net; uint64_t mac; uint32_t ip, host; } vm;
  struct { uint32_t net; struct rule rule; } rule; struct { uint32_t net, number; } del; struct { uint32_t net; struct route route; } route; struct order order; } u; };
enum { ADD_NET, ADD_VM, PLACE, ADD_RULE, DEL_RULE, ADD_ROUTE, TICK, ORDER };

struct home { uint32_t net, ip, host; };
struct rules { struct rule *items; uint32_t count, room; };
struct routes { struct route *items; uint32_t count, room; };
struct tables { struct op *ops; uint32_t count, room, ticks; struct map entered, ordered, touched, vms, owners, nets, prefixes;
  struct home *homes; uint32_t home_count, home_room; struct rules *rules; uint32_t rules_count, rules_room; struct routes *routes; uint32_t routes_count, routes_room;
  struct order *live; uint32_t live_count, live_room; int gate; };

#define PUSH(items, count, room, item) do { if ((count) == (room)) { (room) = (room) ? 2 * (room) : 4; (items) = realloc((items), (room) * sizeof *(items)); } (items)[(count)++] = (item); } while (0)

static void touch(struct tables *t, uint32_t net, uint32_t here, int entry) {
  if (t->gate) return;
  put(&t->touched, net, here);
  if (entry) put(&t->entered, net, here);
}
static int before(const struct rule *a, const struct rule *b) { return a->priority < b->priority || (a->priority == b->priority && a->number < b->number); }

static void add_rule(struct tables *t, uint32_t net, struct rule rule) {
  uint32_t at = get(&t->nets, net, UINT32_MAX);
  if (at == UINT32_MAX) { struct rules none = {0}; at = t->rules_count; put(&t->nets, net, at); PUSH(t->rules, t->rules_count, t->rules_room, none); }
  struct rules *r = &t->rules[at];
  uint32_t place = 0;
  while (place < r->count && !before(&rule, &r->items[place])) place++;
  PUSH(r->items, r->count, r->room, rule);
  memmove(r->items + place + 1, r->items + place, (r->count - 1 - place) * sizeof rule);
  r->items[place] = rule;
}
static void del_rule(struct tables *t, uint32_t net, uint32_t number) {
  uint32_t at = get(&t->nets, net, UINT32_MAX);
  if (at == UINT32_MAX) return;
  struct rules *r = &t->rules[at];
  uint32_t kept = 0;
  for (uint32_t i = 0; i < r->count; i++) if (r->items[i].number != number) r->items[kept++] = r->items[i];
  r->count = kept;
}
static uint64_t bucket(uint32_t net, uint8_t length, uint32_t address) { return ((uint64_t)net * 33 + length) << 32 | (length ? address >> (32 - length) : 0); }
static void add_route(struct tables *t, uint32_t net, struct route route) {
  uint64_t key = bucket(net, route.prefix.length, route.prefix.address);
  uint32_t at = get(&t->prefixes, key, UINT32_MAX);
  if (at == UINT32_MAX) { struct routes none = {0}; at = t->routes_count; put(&t->prefixes, key, at); PUSH(t->routes, t->routes_count, t->routes_room, none); }
  struct routes *r = &t->routes[at];
  uint32_t place = 0;
  while (place < r->count && !(route.number < r->items[place].number)) place++;
  PUSH(r->items, r->count, r->room, route);
  memmove(r->items + place + 1, r->items + place, (r->count - 1 - place) * sizeof route);
  r->items[place] = route;
}
static void end_orders(struct tables *t, int named, uint32_t net, const struct order *same, uint32_t here) {
  uint32_t kept = 0;
  for (uint32_t i = 0; i < t->live_count; i++) {
    struct order *o = &t->live[i];
    if ((named && (o->net == net || o->to_net == net)) || (same && same->net == o->net && same->ip == o->ip) || t->ticks >= o->until) put(&t->touched, o->net, here);
    else t->live[kept++] = *o;
  }
  t->live_count = kept;
}
static void apply(struct tables *t, struct op op) {
  uint32_t here = t->count + 1;
  switch (op.kind) {
  case ADD_NET: end_orders(t, 1, op.u.net, 0, here); touch(t, op.u.net, here, 1); break;
  case ADD_VM: {
    struct home home = {op.u.vm.net, op.u.vm.ip, op.u.vm.host};
    put(&t->vms, op.u.vm.vm, t->home_count);
    PUSH(t->homes, t->home_count, t->home_room, home);
    put(&t->owners, (uint64_t)op.u.vm.net << 32 | op.u.vm.ip, op.u.vm.vm);
    end_orders(t, 1, op.u.vm.net, 0, here); touch(t, op.u.vm.net, here, 1); break; }
  case PLACE: {
    uint32_t at = get(&t->vms, op.u.vm.vm, UINT32_MAX);
    if (at != UINT32_MAX) { t->homes[at].host = op.u.vm.host; end_orders(t, 1, t->homes[at].net, 0, here); touch(t, t->homes[at].net, here, 1); }
    break; }
  case ADD_RULE: if (!t->gate) add_rule(t, op.u.rule.net, op.u.rule.rule); end_orders(t, 1, op.u.rule.net, 0, here); touch(t, op.u.rule.net, here, 1); break;
  case DEL_RULE: if (!t->gate) del_rule(t, op.u.del.net, op.u.del.number); end_orders(t, 1, op.u.del.net, 0, here); touch(t, op.u.del.net, here, 1); break;
  case ADD_ROUTE: if (t->gate) add_route(t, op.u.route.net, op.u.route.route); end_orders(t, 1, op.u.route.net, 0, here); touch(t, op.u.route.net, here, 1); break;
  case TICK: t->ticks++; end_orders(t, 0, 0, 0, here); break;
  case ORDER: if (!t->gate) { end_orders(t, 0, 0, &op.u.order, here); put(&t->ordered, (uint64_t)op.u.order.net << 32 | op.u.order.ip, here); touch(t, op.u.order.net, here, 0);
    if (t->ticks < op.u.order.until) PUSH(t->live, t->live_count, t->live_room, op.u.order); } break;
  }
  PUSH(t->ops, t->count, t->room, op);
}

struct size { uint32_t entries, nets, vms; };
static struct op entry(struct size s, uint32_t at) {
  struct op op = {0};
  if (at < s.nets) { op.kind = ADD_NET; op.u.net = at + 1; return op; }
  uint32_t vm = at - s.nets;
  if (vm < s.vms) { op.kind = ADD_VM; op.u.vm.vm = vm; op.u.vm.net = 1 + vm % s.nets; op.u.vm.mac = vm; op.u.vm.ip = BASE + vm; op.u.vm.host = vm % 64; return op; }
  at = vm - s.vms;
  uint32_t turn = at / 4, net = 1 + turn % s.nets, number = turn / s.nets;
  switch (at % 4) {
  case 0: op.kind = PLACE; op.u.vm.vm = at % s.vms; op.u.vm.host = turn % 64; break;
  case 1: { struct rule r = {number, number % 8, number % 2, 1, 0, -1, {0, 0}, {0, 0}, 0, 65535, 1000 + number % 1000, 65535}; op.kind = ADD_RULE; op.u.rule.net = net; op.u.rule.rule = r; break; }
  case 2: if (number >= 16) { op.kind = DEL_RULE; op.u.del.net = net; op.u.del.number = number - 16; } else op.kind = TICK; break;
  default: { struct route r = {number, {BASE + number % 1024 * 8, 8 + number % 25}, number % 2, 1 + net % s.nets}; op.kind = ADD_ROUTE; op.u.route.net = net; op.u.route.route = r; }
  }
  return op;
}
static void fill(struct tables *t, struct size s) {
  for (uint32_t at = 0; at < s.entries; at++) apply(t, entry(s, at));
  for (uint32_t at = 0; at < 256; at++)
    if (at / 4 < s.nets) { struct op op = {0}; uint32_t net = 1 + at % s.nets; struct order o = {net, BASE + at, net, at % 64, UINT32_MAX}; op.kind = ORDER; op.u.order = o; apply(t, op); }
}
static void clear(struct tables *t) {
  for (uint32_t i = 0; i < t->rules_count; i++) free(t->rules[i].items);
  for (uint32_t i = 0; i < t->routes_count; i++) free(t->routes[i].items);
  free(t->ops); free(t->homes); free(t->rules); free(t->routes); free(t->live);
  drop(&t->entered); drop(&t->ordered); drop(&t->touched); drop(&t->vms); drop(&t->owners); drop(&t->nets); drop(&t->prefixes);
  memset(t, 0, sizeof *t);
}

static const struct home *home(const struct tables *t, uint32_t vm) { uint32_t at = get(&t->vms, vm, UINT32_MAX); return at == UINT32_MAX ? 0 : &t->homes[at]; }
static uint32_t owner(const struct tables *t, uint32_t net, uint32_t ip) { return get(&t->owners, (uint64_t)net << 32 | ip, UINT32_MAX); }
static const struct order *offload(const struct tables *t, uint32_t net, uint32_t ip) {
  uint32_t place = get(&t->ordered, (uint64_t)net << 32 | ip, 0);
  if (!place) return 0;
  const struct order *o = &t->ops[place - 1].u.order;
  return place >= get(&t->entered, o->net, 0) && place >= get(&t->entered, o->to_net, 0) && t->ticks < o->until ? o : 0;
}
static const struct rules *rules(const struct tables *t, uint32_t net) { uint32_t at = get(&t->nets, net, UINT32_MAX); return at == UINT32_MAX ? 0 : &t->rules[at]; }
static uint32_t locate(const struct tables *t, uint32_t net, uint32_t ip) { uint32_t vm = owner(t, net, ip); return vm == UINT32_MAX ? UINT32_MAX : home(t, vm)->host; }
// The routed network, and the host there.
static uint32_t routed(const struct tables *t, uint32_t net, uint32_t ip, uint32_t *to) {
  *to = net;
  for (int length = 32; length >= 0; length--) {
    uint32_t at = get(&t->prefixes, bucket(net, length, ip), UINT32_MAX);
    if (at != UINT32_MAX && t->routes[at].count) { if (t->routes[at].items[0].kind == 1) *to = t->routes[at].items[0].peer; break; }
  }
  return locate(t, *to, ip);
}

struct tuple { uint8_t protocol; uint32_t source, destination; uint16_t sport, dport; };
static uint16_t hash_of(const struct tuple *x) {
  uint8_t b[13] = {x->protocol, x->source >> 24, x->source >> 16, x->source >> 8, x->source, x->destination >> 24, x->destination >> 16, x->destination >> 8, x->destination, x->sport >> 8, x->sport, x->dport >> 8, x->dport};
  uint16_t h = 0;
  for (int i = 0; i < 13; i++) h = 31 * h + b[i];
  return h;
}
static uint32_t be32(const uint8_t *b) { return (uint32_t)b[0] << 24 | b[1] << 16 | b[2] << 8 | b[3]; }
static int parse(const uint8_t *f, size_t n, struct tuple *x) {
  if (n > 65499 || n < 14 || f[12] != 8 || f[13]) return 0;
  const uint8_t *ip = f + 14; size_t rest = n - 14;
  if (rest < 20 || ip[0] >> 4 != 4) return 0;
  size_t head = (ip[0] & 15) * 4, total = ip[2] << 8 | ip[3];
  if (head < 20 || total < head || rest < total) return 0;
  x->protocol = ip[9]; x->source = be32(ip + 12); x->destination = be32(ip + 16); x->sport = x->dport = 0;
  if ((ip[9] == 6 || ip[9] == 17) && !((ip[6] & 0x3f) | ip[7])) { if (total < head + 4) return 0; x->sport = ip[head] << 8 | ip[head + 1]; x->dport = ip[head + 2] << 8 | ip[head + 3]; }
  return 1;
}
static int in(const struct prefix *p, uint32_t a) { return p->length == 0 || (p->length <= 32 && (p->address ^ a) >> (32 - p->length) == 0); }
static int match(const struct rule *r, const struct tuple *x) {
  return (r->protocol < 0 || r->protocol == x->protocol) && in(&r->source, x->source) && in(&r->destination, x->destination) && r->slow <= x->sport && x->sport <= r->shigh && r->dlow <= x->dport && x->dport <= r->dhigh;
}
static const struct rule *first_match(const struct rules *r, const struct tuple *x, int side) {
  if (r) for (uint32_t i = 0; i < r->count; i++) if (r->items[i].side == side && match(&r->items[i], x)) return &r->items[i];
  return 0;
}

struct cached { uint8_t side; uint32_t scope; struct tuple x; uint32_t stamp, number; };
struct cache { struct cached items[64][16]; uint32_t count[64]; };
static const struct cached *look(const struct cache *c, int side, uint32_t scope, const struct tuple *x, uint32_t floor) {
  uint32_t g = hash_of(x) % 64;
  for (uint32_t i = 0; i < c->count[g]; i++) {
    const struct cached *e = &c->items[g][i];
    if (e->side == side && e->scope == scope && e->x.protocol == x->protocol && e->x.source == x->source && e->x.destination == x->destination && e->x.sport == x->sport && e->x.dport == x->dport) return floor <= e->stamp ? e : 0;
  }
  return 0;
}
static void remember(struct cache *c, int side, uint32_t scope, const struct tuple *x, uint32_t stamp, uint32_t number) {
  uint32_t g = hash_of(x) % 64;
  struct cached e = {side, scope, *x, stamp, number};
  c->items[g][c->count[g]++] = e;
}
static uint32_t leave(const struct tables *t, uint32_t vm, const struct tuple *x) {
  const struct home *h = home(t, vm);
  if (!h || h->ip != x->source) return 3;
  const struct rule *r = first_match(rules(t, h->net), x, 0);
  if (r && !r->allow) return 3;
  const struct order *o = offload(t, h->net, x->destination);
  return o ? o->to_host * 3 + o->to_net : hash_of(x) % GATEWAYS + 5;
}
static uint32_t land(const struct tables *t, uint32_t net, const struct tuple *x) {
  uint32_t vm = owner(t, net, x->destination);
  if (vm == UINT32_MAX) return 3;
  const struct rule *r = first_match(rules(t, net), x, 1);
  return vm + (r && r->allow ? 1000 : 0);
}
static uint32_t egress(const struct tables *t, const struct cache *c, const uint8_t *frame, size_t n, uint32_t vm, uint32_t need) {
  struct tuple x;
  if (t->count < need) return 1;
  if (!parse(frame, n, &x)) return 3;
  const struct cached *e = home(t, vm) ? look(c, 0, vm, &x, t->count) : 0;
  return e ? e->number : leave(t, vm, &x);
}
static uint32_t ingress(const struct tables *t, const struct cache *c, const uint8_t *frame, size_t n, uint32_t net, uint32_t need) {
  struct tuple x;
  if (t->count < need) return 1;
  if (!parse(frame, n, &x)) return 3;
  const struct cached *e = look(c, 1, net, &x, t->count);
  return e ? e->number : land(t, net, &x);
}
static uint32_t gateway(const struct tables *g, const uint8_t *frame, size_t n, uint32_t net, int redirect, uint32_t need) {
  struct tuple x; uint32_t to, host;
  if (g->count < need) return 1;
  if (!parse(frame, n, &x)) return 3;
  if (redirect) { host = locate(g, net, x.destination); return host == UINT32_MAX ? 3 : host; }
  host = routed(g, net, x.destination, &to);
  return host == UINT32_MAX ? 3 : host * 3 + to;
}

static uint8_t frame[42] = {2, 0, 0, 0, 0, 2, 2, 0, 0, 0, 0, 1, 8, 0, 0x45, 0, 0, 28, 0, 0, 0, 0, 64, 17, 0, 0, 10, 0, 0, 0, 10, 0, 0, 64, 16, 0, 0, 80, 0, 8, 0, 0};

int main(int argc, char **argv) {
  if (argc != 4) return 1;
  const char *w = argv[1];
  struct size s = {strtoul(argv[2], 0, 10), 64, 1024};
  uint32_t rounds = strtoul(argv[3], 0, 10), sum = 0;
  if (s.entries < 10000) { s.nets = 8; s.vms = 128; }
  if (!strcmp(w, "apply") || !strcmp(w, "hold")) {
    for (uint32_t r = 0; r < rounds; r++) { struct tables t = {0}; fill(&t, s); sum += t.count; if (*w == 'a') clear(&t); }
    printf("%u\n", sum);
    return 0;
  }
  struct tables t = {0}, g = {0};
  static struct cache c;
  g.gate = 1;
  fill(&t, s);
  fill(&g, s);
  struct tuple x;
  parse(frame, sizeof frame, &x);
  if (strstr(w, "_fast")) { remember(&c, 0, 0, &x, t.count, leave(&t, 0, &x)); remember(&c, 1, 1, &x, t.count, land(&t, 1, &x)); }
#define LOOP(number) for (uint32_t r = 0; r < rounds; r++) { uint32_t vm = r * 7919 % s.vms, net = 1 + vm % s.nets, ip = BASE + vm; (void)ip; (void)net; sum = sum * 31 + (number); }
  if (!strcmp(w, "net_of")) LOOP(home(&t, vm) ? home(&t, vm)->net : 0)
  else if (!strcmp(w, "address")) LOOP(home(&t, vm) ? home(&t, vm)->ip : 0)
  else if (!strcmp(w, "owner")) LOOP(owner(&t, net, ip) == UINT32_MAX ? 0 : owner(&t, net, ip))
  else if (!strcmp(w, "offload")) LOOP(({ const struct order *o = offload(&t, net, ip); o ? o->to_host : 64; }))
  else if (!strcmp(w, "touched")) LOOP(get(&t.touched, net, 0))
  else if (!strcmp(w, "rules")) LOOP(({ const struct rules *l = rules(&t, net); l && l->count ? l->items[0].number : 0; }))
  else if (!strcmp(w, "route")) LOOP(({ uint32_t to, host = routed(&g, net, ip, &to); host == UINT32_MAX ? 2 : host * 3 + to; }))
  else if (!strcmp(w, "locate")) LOOP(({ uint32_t host = locate(&g, net, ip); host == UINT32_MAX ? 1 : host; }))
  else if (!strncmp(w, "egress", 6)) LOOP(egress(&t, &c, frame, sizeof frame, 0, r % 2))
  else if (!strncmp(w, "ingress", 7)) LOOP(ingress(&t, &c, frame, sizeof frame, 1, r % 2))
  else if (!strcmp(w, "gateway")) LOOP(gateway(&g, frame, sizeof frame, 1, r % 2 == 1, r % 2))
  else return 1;
  printf("%u\n", sum);
  return 0;
}
