// A mesh whose changes lock what they find. Threads flip edges of a triangulation until it is Delaunay's: no corner of
// a triangle lies in the circle around one beside it. A flip changes two triangles, and the neighbours of both, which it
// finds one by one, each in what it has locked. Other flips come from other sides: there is no order in which to lock.
// And a lock for each region of the plane would have to guess how far a change reaches.
#include <ww_mutex.hpp>
#include <algorithm>
#include <array>
#include <cstdio>
#include <cstdlib>
#include <thread>
#include <vector>

namespace {

ww::mutex_class meshes(ww::mutex_class::wound_wait, "meshes");

struct point {
	long long x, y;
};

struct triangle {
	ww::mutex lock{ meshes };
	std::array<const point *, 3> corner{};	// counter-clockwise
	std::array<triangle *, 3> across{};	// beyond the edge opposite of that corner; nullptr at the rim
};

constexpr unsigned next(unsigned corner) { return (corner + 1) % 3; }
constexpr unsigned last(unsigned corner) { return (corner + 2) % 3; }

// An edge from b to d, and the two triangles beside it: left is a, b, d, and right is c, d, b.
//
//          d                   d
//        / | \               /   \        .
//       a  |  c   flipped   a --- c
//        \ | /               \   /
//          b                   b
//
struct edge {
	triangle *left, *right;
	unsigned a, c; // which corner it is

	edge(triangle &t, unsigned k) : left(&t), right(t.across[k]), a(k), c(0)
	{
		while (right->across[c] != left)
			c++;
	}
	const point *at_a() const { return left->corner[a]; }
	const point *at_b() const { return left->corner[next(a)]; }
	const point *at_c() const { return right->corner[c]; }
	const point *at_d() const { return left->corner[last(a)]; }
	// These two come to be beside the other triangle.
	triangle *beyond_ad() const { return left->across[next(a)]; }
	triangle *beyond_bc() const { return right->across[next(c)]; }
};

// Twice the area; below 0 if they are clockwise.
long long area(const point *a, const point *b, const point *c)
{
	return (b->x - a->x) * (c->y - a->y) - (c->x - a->x) * (b->y - a->y);
}

// Whether c lies in the circle around a, b and d.
bool is_better_flipped(const edge &e)
{
	const point *a = e.at_a(), *b = e.at_b(), *c = e.at_c(), *d = e.at_d();
	const auto square = [](long long x, long long y) { return x * x + y * y; };
	const auto from_c = [&](const point *p) { return square(p->x - c->x, p->y - c->y); };

	return from_c(a) * area(c, b, d) + from_c(b) * area(c, d, a) + from_c(d) * area(c, a, b) > 0;
}

void replace(triangle *in, triangle *was, triangle *is)
{
	if (in)
		*std::find(in->across.begin(), in->across.end(), was) = is;
}

void flip(const edge &e)
{
	triangle *const ad = e.beyond_ad(), *const bc = e.beyond_bc();

	e.left->corner[last(e.a)] = e.at_c();
	e.right->corner[last(e.c)] = e.at_a();
	e.left->across[e.a] = bc;
	e.left->across[next(e.a)] = e.right;
	e.right->across[e.c] = ad;
	e.right->across[next(e.c)] = e.left;
	replace(ad, e.left, e.right);
	replace(bc, e.right, e.left);
}

constexpr int STAYS = 1; // a number above 0 gives up

// Flips the edge if that is better, and returns the triangle beyond it, else nullptr.
triangle *improve(triangle &t, unsigned k)
{
	triangle *other = nullptr;
	const auto locks = [&](ww::context &x) {
		int err = x.lock(t.lock);

		if (err)
			return err;
		other = t.across[k];
		err = other ? x.lock(other->lock) : STAYS;
		if (err)
			return err;
		const edge e(t, k);
		if (!is_better_flipped(e))
			return STAYS;
		for (triangle *it : { e.beyond_ad(), e.beyond_bc() })
			if (it && (err = x.lock(it->lock)))
				return err;
		return 0;
	};
	// After -EDEADLK `locks` runs again, with nothing held; once it returns 0, the flip runs with all of them held.
	const auto done = ww::lock_by(meshes, locks, [&] { flip(edge(t, k)); });

	if (!done && done.error() != STAYS)
		std::abort();
	return done ? other : nullptr;
}

// Goes on with what has changed, since an edge around that may be better flipped now.
void improve_all(std::vector<triangle *> list)
{
	while (!list.empty()) {
		triangle *const it = list.back(), *other = nullptr;

		list.pop_back();
		for (unsigned k = 0; k < 3 && !other; k++)
			other = improve(*it, k);
		if (other)
			list.insert(list.end(), { it, other });
	}
}

// ---- a grid of points, each moved a little, and two triangles for each of its squares ----

constexpr unsigned SIDE = 64, SQUARES = SIDE - 1;

unsigned draw(unsigned &random, unsigned below)
{
	random = random * 1664525u + 1013904223u;
	return (random >> 8) % below;
}

std::vector<point> draw_points()
{
	std::vector<point> all;
	unsigned random = 1;

	for (unsigned k = 0; k < SIDE * SIDE; k++)
		all.push_back({ k % SIDE * 256 + draw(random, 100), k / SIDE * 256 + draw(random, 100) });
	return all;
}

const std::vector<point> points = draw_points();

struct mesh {
	std::vector<triangle> all = std::vector<triangle>(2 * SQUARES * SQUARES);

	triangle *at(unsigned x, unsigned y, unsigned upper)
	{
		return x < SQUARES && y < SQUARES ? &all[2 * (y * SQUARES + x) + upper] : nullptr;
	}
	mesh()
	{
		for (unsigned k = 0; k < SQUARES * SQUARES; k++) {
			const unsigned x = k % SQUARES, y = k / SQUARES;
			const point *const a = &points[y * SIDE + x], *const d = a + SIDE;
			triangle *const lower = at(x, y, 0), *const upper = at(x, y, 1);

			lower->corner = { a, a + 1, d + 1 };
			lower->across = { at(x + 1, y, 1), upper, at(x, y - 1, 1) };
			upper->corner = { a, d + 1, d };
			upper->across = { at(x, y + 1, 0), at(x - 1, y, 0), lower };
		}
		spoil();
	}
	// Flips at random, so that there is something to do.
	void spoil()
	{
		unsigned random = 2;

		for (std::size_t times = 4 * all.size(); times--;) {
			triangle &it = all[draw(random, 2 * SQUARES * SQUARES)];
			const unsigned k = draw(random, 3);

			if (!it.across[k])
				continue;
			const edge e(it, k);
			if (area(e.at_a(), e.at_b(), e.at_c()) > 0 && area(e.at_c(), e.at_d(), e.at_a()) > 0)
				flip(e);
		}
	}
	// Neighbours fall to different threads, which so collide as often as they can.
	void improve_by(unsigned count)
	{
		std::vector<std::vector<triangle *>> lists(count);
		std::vector<std::thread> threads;

		for (std::size_t k = 0; k < all.size(); k++)
			lists[k % count].push_back(&all[k]);
		for (auto &list : lists)
			threads.emplace_back(improve_all, list);
		for (auto &it : threads)
			it.join();
	}
	bool is_delaunay()
	{
		for (auto &it : all)
			for (unsigned k = 0; k < 3; k++)
				if (it.across[k] && is_better_flipped(edge(it, k)))
					return false;
		return true;
	}
	// The corners of each triangle, in an order that doesn't depend on how they came about.
	std::vector<std::array<const point *, 3>> shape() const
	{
		std::vector<std::array<const point *, 3>> result;

		for (auto &it : all) {
			result.push_back(it.corner);
			std::sort(result.back().begin(), result.back().end());
		}
		std::sort(result.begin(), result.end());
		return result;
	}
};

} // namespace

int main()
{
	mesh by_one, by_four;
	const bool was_delaunay = by_four.is_delaunay();

	by_one.improve_by(1);
	by_four.improve_by(4);
	const bool is_right = !was_delaunay && by_four.is_delaunay() && by_four.shape() == by_one.shape();

	std::printf("mesh: %zu triangles are %s\n", by_four.all.size(), is_right ? "those of one thread" : "wrong");
	return is_right ? 0 : 1;
}
