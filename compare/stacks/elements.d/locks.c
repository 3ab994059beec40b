/* Tells ThreadSanitizer of the locks of GLib, which it does not see: they are no pthread mutexes, and GLib is
 * not built with the sanitizer. Linked into a program, these functions stand before GLib's, which they call.
 * What one thread did before it unlocks is known to the next one that locks; so it is with weak references,
 * and with the references of an object, which are counted by atomic operations. */
#define _GNU_SOURCE
#include <dlfcn.h>
#include <gst/gst.h>
#include <sanitizer/tsan_interface.h>

/* The function of GLib or GStreamer that this name has besides the one of this file. */
#define REAL(name, ...) ((__typeof__(&name))found(&real_##name, #name))(__VA_ARGS__)
#define KEEP(name) static gpointer real_##name

static gpointer found(gpointer *kept, const gchar *name)
{
    gpointer real = __atomic_load_n(kept, __ATOMIC_ACQUIRE);
    if (real == NULL) {
        real = dlsym(RTLD_NEXT, name);
        __atomic_store_n(kept, real, __ATOMIC_RELEASE);
    }
    return real;
}

/* ---- Locks */

#undef g_mutex_trylock
KEEP(g_mutex_lock);
KEEP(g_mutex_trylock);
KEEP(g_mutex_unlock);
KEEP(g_cond_wait);
KEEP(g_cond_wait_until);

void g_mutex_lock(GMutex *mutex)
{
    REAL(g_mutex_lock, mutex);
    __tsan_acquire(mutex);
}

gboolean g_mutex_trylock(GMutex *mutex)
{
    const gboolean locked = REAL(g_mutex_trylock, mutex);
    if (locked)
        __tsan_acquire(mutex);
    return locked;
}

void g_mutex_unlock(GMutex *mutex)
{
    __tsan_release(mutex);
    REAL(g_mutex_unlock, mutex);
}

void g_cond_wait(GCond *cond, GMutex *mutex)
{
    __tsan_release(mutex);
    REAL(g_cond_wait, cond, mutex);
    __tsan_acquire(mutex);
}

gboolean g_cond_wait_until(GCond *cond, GMutex *mutex, gint64 end)
{
    gboolean signalled;
    __tsan_release(mutex);
    signalled = REAL(g_cond_wait_until, cond, mutex, end);
    __tsan_acquire(mutex);
    return signalled;
}

/* ---- References */

KEEP(g_object_unref);
KEEP(gst_mini_object_unref);
KEEP(g_weak_ref_set);
KEEP(g_weak_ref_get);

void(g_object_unref)(gpointer object)
{
    __tsan_release(object);
    __tsan_acquire(object);
    REAL(g_object_unref, object);
}

void gst_mini_object_unref(GstMiniObject *object)
{
    __tsan_release(object);
    __tsan_acquire(object);
    REAL(gst_mini_object_unref, object);
}

void g_weak_ref_set(GWeakRef *reference, gpointer object)
{
    __tsan_release(reference);
    REAL(g_weak_ref_set, reference, object);
}

gpointer g_weak_ref_get(GWeakRef *reference)
{
    gpointer object = REAL(g_weak_ref_get, reference);
    __tsan_acquire(reference);
    return object;
}
