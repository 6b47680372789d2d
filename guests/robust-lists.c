// Robust lists of every kind: an empty one, one that is too long, words before their pointers, and lists and words that
// can't be read or written, where the walk ends.
#include "robusts.h"

enum { RING = 2100 };

static struct thread thread;
static struct lock ring[RING], locks[3], pending_lock;
static struct head head;
static volatile i64 tid;
// What the thread does to the list when its number is known.
static void (*volatile prepare)(void);

static i64 own(u64 n)
{
    tid = gettid();
    memset(locks, 0, sizeof locks);
    head.next = &locks[0];
    head.offset = WORD_OFFSET;
    head.pending = &pending_lock;
    for (u64 at = 0; at < COUNT(locks); at++) {
        locks[at].next = at + 1 < COUNT(locks) ? (void *)&locks[at + 1] : (void *)&head;
        locks[at].word = tid;
    }
    pending_lock.next = 0;
    pending_lock.word = tid;
    set_robust_list(&head, HEAD_SIZE);
    prepare();
    return 0;
}

static void show_word(u32 word)
{
    text(word == tid ? " held" : word == OWNER_DIED ? " marked" : word == 0 ? " free" : " another");
}

static void run(const char *name, void (*function)(void))
{
    prepare = function;
    start(&thread, own, 0);
    join(&thread);
    text(name);
    text(":");
    for (u64 at = 0; at < COUNT(locks); at++)
        show_word(locks[at].word);
    text(", pending");
    show_word(pending_lock.word);
    text("\n");
}

static void nothing(void) {}
static void no_list(void) { set_robust_list(0, HEAD_SIZE); }
static void empty(void) { head.next = &head; }
static void no_pending(void) { head.pending = 0; }
static void freed(void) { locks[1].word = 0; }
static void short_list(void) { locks[1].next = &head; }
static void pending_in_list(void) { head.pending = &locks[1]; }

static u64 bad_page(u64 rights)
{
    u64 at = new_pages(PAGE);
    ((struct lock *)at)->next = &locks[2];
    ((struct lock *)at)->word = tid;
    mprotect(at, PAGE, rights);
    return at;
}

static void unreadable_head(void) { set_robust_list((struct head *)bad_page(0), HEAD_SIZE); }
static void unreadable_second(void) { locks[0].next = (void *)bad_page(0); }
static void unwritable_second(void) { locks[0].next = (void *)bad_page(RIGHT_READ); }
static void unreadable_pending(void) { head.pending = (void *)bad_page(0); }
static void odd_words(void) { head.offset = 13; }

static void unwritable_of_another(void)
{
    u64 at = bad_page(RIGHT_READ);
    mprotect(at, PAGE, RIGHT_READ | RIGHT_WRITE);
    ((struct lock *)at)->word = 12345;
    mprotect(at, PAGE, RIGHT_READ);
    locks[0].next = (void *)at;
}

// Each pointer is that of the next lock, whose word stands before it.
static void words_before(void)
{
    head.offset = -4;
    head.next = &locks[1];
    head.pending = 0;
    locks[1].next = &locks[2];
    locks[2].next = &head;
}

// A list that doesn't come back to its head.
static void too_long(void)
{
    for (u64 at = 0; at < RING; at++) {
        ring[at].next = &ring[(at + 1) % RING];
        ring[at].word = at == 6 ? 12345 : tid;
    }
    head.next = &ring[0];
}

int guest(int count, char **arguments)
{
    u64 marked = 0, last = 0;
    run("three locks", nothing);
    run("no list", no_list);
    run("an empty list", empty);
    run("none pending", no_pending);
    run("one is free", freed);
    run("two locks", short_list);
    run("one of the list pending", pending_in_list);
    run("a head that can't be read", unreadable_head);
    run("a second that can't be read", unreadable_second);
    run("a second that can't be written", unwritable_second);
    run("a second that can't be written, of another", unwritable_of_another);
    run("a pending one that can't be read", unreadable_pending);
    run("words at odd addresses", odd_words);
    run("words before the pointers", words_before);
    run("a list that is too long", too_long);
    for (u64 at = 0; at < RING; at++)
        if (ring[at].word == OWNER_DIED) {
            marked++;
            last = at;
        }
    line("marked", marked);
    line("the last", last);
    line("the one of another", ring[6].word);
    return 0;
}
