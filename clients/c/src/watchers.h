/* What valgrind and the sanitizers are told of a stack: nothing, unless the library is built with them. */
#ifndef JPSTORE_WATCHERS_H
#define JPSTORE_WATCHERS_H

#if defined(__has_include)
#if __has_include(<valgrind/valgrind.h>)
#include <valgrind/valgrind.h>
#endif
#endif

#ifdef VALGRIND_STACK_REGISTER
#define watch_stack(fiber, begin, end) ((fiber)->valgrind_id = (unsigned)VALGRIND_STACK_REGISTER(begin, end))
#define forget_stack(fiber) VALGRIND_STACK_DEREGISTER((fiber)->valgrind_id)
#else
#define watch_stack(fiber, begin, end) ((void)0)
#define forget_stack(fiber) ((void)0)
#endif

#if defined(__has_feature)
#if __has_feature(address_sanitizer)
#define WATCHED_ADDRESSES 1
#endif
#if __has_feature(thread_sanitizer)
#define WATCHED_THREADS 1
#endif
#endif
#ifdef __SANITIZE_ADDRESS__
#define WATCHED_ADDRESSES 1
#endif
#ifdef __SANITIZE_THREAD__
#define WATCHED_THREADS 1
#endif

#ifdef WATCHED_ADDRESSES
#include <sanitizer/asan_interface.h>
#include <sanitizer/common_interface_defs.h>
#define before_switch(fake, begin, size) __sanitizer_start_switch_fiber(fake, begin, size)
#define after_switch(fake, begin, size) __sanitizer_finish_switch_fiber(fake, begin, size)
#define forget_poison(begin, size) __asan_unpoison_memory_region(begin, size)
#else
#define before_switch(fake, begin, size) ((void)0)
#define after_switch(fake, begin, size) ((void)0)
#define forget_poison(begin, size) ((void)0)
#endif

#ifdef WATCHED_THREADS
#include <sanitizer/tsan_interface.h>
#define make_thread(fiber) ((fiber)->own_thread = __tsan_create_fiber(0))
#define free_thread(fiber) __tsan_destroy_fiber((fiber)->own_thread)
#define enter_thread(fiber) \
    ((fiber)->caller_thread = __tsan_get_current_fiber(), __tsan_switch_to_fiber((fiber)->own_thread, 0))
#define leave_thread(fiber) __tsan_switch_to_fiber((fiber)->caller_thread, 0)
#else
#define make_thread(fiber) ((void)0)
#define free_thread(fiber) ((void)0)
#define enter_thread(fiber) ((void)0)
#define leave_thread(fiber) ((void)0)
#endif

#endif
