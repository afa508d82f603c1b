//go:build kombilad_failing

package kombilad

// For tests, the build tag kombilad_failing makes C allocate by functions that fail on demand.

/*
#cgo CFLAGS: -include ${SRCDIR}/failing.h

#include <stdatomic.h>
#include <stdlib.h>

static atomic_long left = -1;
static atomic_long held;

static int refuses(void) {
	return atomic_load(&left) >= 0 && atomic_fetch_sub(&left, 1) == 0;
}

void *kombilad_test_malloc(size_t size) {
	void *made = refuses() ? NULL : malloc(size);
	if (made) atomic_fetch_add(&held, 1);
	return made;
}

void *kombilad_test_realloc(void *before, size_t size) {
	void *made = refuses() ? NULL : realloc(before, size);
	if (made && !before) atomic_fetch_add(&held, 1);
	return made;
}

void kombilad_test_free(void *it) {
	if (it) atomic_fetch_sub(&held, 1);
	free(it);
}

static void refuse_after(long count) { atomic_store(&left, count); }
static long allocations_left(void) { return atomic_load(&left); }
static long allocations_held(void) { return atomic_load(&held); }
*/
import "C"

// refuseAfter makes one allocation fail, after count others, or no allocation if count is negative.
func refuseAfter(count int) { C.refuse_after(C.long(count)) }

// hasRefused reports whether that allocation has failed.
func hasRefused() bool { return C.allocations_left() < 0 }

// allocationsHeld returns the number of allocations that are not freed.
func allocationsHeld() int { return int(C.allocations_held()) }
