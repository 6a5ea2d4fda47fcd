// AGG's curve by forward differences, agg::curve4_inc.
#include <agg_basics.h>
#include <agg_curves.h>
#include <cstddef>

struct Point { double x, y; };

// A span's controls, and the scale at which AGG takes as many steps as it should.
struct ScaledSpan { Point a, b, c, d; double scale; };

static void begin(agg::curve4_inc &curve, const ScaledSpan &s) {
    curve.approximation_scale(s.scale);
    curve.init(s.a.x, s.a.y, s.b.x, s.b.y, s.c.x, s.c.y, s.d.x, s.d.y);
}

// How many vertices AGG has for a span.
extern "C" std::size_t agg_vertices(const ScaledSpan *span) {
    agg::curve4_inc curve;
    begin(curve, *span);
    Point ignored;
    std::size_t count = 0;
    while (!agg::is_stop(curve.vertex(&ignored.x, &ignored.y))) count++;
    return count;
}

// The vertices of every span; the start of one takes the place of the end of the one before.
extern "C" void agg_points(const ScaledSpan *spans, std::size_t count, Point *points) {
    agg::curve4_inc curve;
    for (std::size_t i = 0; i < count; i++) {
        begin(curve, spans[i]);
        while (!agg::is_stop(curve.vertex(&points->x, &points->y))) points++;
        points--;
    }
}
