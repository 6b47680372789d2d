// A heap by brk: a break that moves up and down, blocks that are given back and joined, and zeros in new pages.
#include "guest.h"

struct block {
    u64 size;
    struct block *next;
};

static struct block *free_blocks;
static u64 heap_end;

// The break moves up by whole pages, and the new bytes are a free block.
static void grow(u64 size)
{
    struct block *block = (struct block *)heap_end;
    u64 more = (size + PAGE - 1) / PAGE * PAGE;
    if ((u64)brk(heap_end + more) != heap_end + more)
        exit_group(98);
    heap_end += more;
    block->size = more;
    block->next = free_blocks;
    free_blocks = block;
}

// A block of 16 bytes times a number, with its size before it.
static void *take(u64 size)
{
    size = (size + 31) / 16 * 16;
    for (;;) {
        for (struct block **at = &free_blocks; *at != 0; at = &(*at)->next) {
            struct block *found = *at;
            if (found->size < size)
                continue;
            if (found->size >= size + 32) {
                struct block *rest = (struct block *)((u64)found + size);
                rest->size = found->size - size;
                rest->next = found->next;
                found->size = size;
                *at = rest;
            } else
                *at = found->next;
            return found + 1;
        }
        grow(size);
    }
}

static void give_back(void *at)
{
    struct block *block = (struct block *)at - 1;
    block->next = free_blocks;
    free_blocks = block;
}

struct node {
    u64 key;
    struct node *left, *right;
};

static struct node *insert(struct node *tree, u64 key)
{
    if (tree == 0) {
        struct node *made = take(sizeof *made);
        made->key = key;
        made->left = made->right = 0;
        return made;
    }
    if (key < tree->key)
        tree->left = insert(tree->left, key);
    else if (key > tree->key)
        tree->right = insert(tree->right, key);
    return tree;
}

static u64 nodes, sum, is_in_order = 1, last_key;

static void walk(struct node *tree)
{
    if (tree == 0)
        return;
    walk(tree->left);
    nodes++;
    sum += tree->key;
    is_in_order &= nodes == 1 || last_key < tree->key;
    last_key = tree->key;
    walk(tree->right);
    give_back(tree);
}

int guest(int count, char **arguments)
{
    u64 start = brk(0), key = 12345;
    struct node *tree = 0;
    heap_end = (start + PAGE - 1) / PAGE * PAGE;
    truth("the break stays where it is asked", (u64)brk(0) == start);
    truth("below its start nothing changes", (u64)brk(start - 1) == start && (u64)brk(1) == start);
    truth("the break moves up by one byte", (u64)brk(start + 1) == start + 1);
    truth("and by no whole page", (u64)brk(start + 5000) == start + 5000);
    truth("a break that is too high stays", (u64)brk(1UL << 62) == start + 5000);
    truth("the break moves down", (u64)brk(start) == start);
    for (u32 at = 0; at < 1000; at++) {
        key = (key * 1103515245 + 12345) % 2147483648;
        tree = insert(tree, key >> 8);
    }
    walk(tree);
    line("nodes", nodes);
    line("sum of keys", sum);
    truth("in order", is_in_order);
    for (u32 round = 0; round < 4; round++) {
        u8 *blocks[20];
        u32 is_kept = 1;
        for (u32 at = 0; at < 20; at++) {
            blocks[at] = take(100 + 37 * at);
            memset(blocks[at], at, 100 + 37 * at);
        }
        for (u32 at = 0; at < 20; at++) {
            for (u32 byte = 0; byte < 100 + 37 * at; byte++)
                is_kept &= blocks[at][byte] == at;
            give_back(blocks[at]);
        }
        truth("the blocks are kept", is_kept);
    }
    // The pages above the break are given back, and new ones are zeros.
    u64 low = heap_end, zeros = 0;
    truth("the break moves up by 16 pages", (u64)brk(low + 16 * PAGE) == low + 16 * PAGE);
    memset((void *)low, 0xaa, 16 * PAGE);
    truth("it moves down by 15", (u64)brk(low + PAGE) == low + PAGE);
    truth("it moves up by 15", (u64)brk(low + 16 * PAGE) == low + 16 * PAGE);
    for (u64 at = low + PAGE; at < low + 16 * PAGE; at++)
        zeros += *(u8 *)at == 0;
    line("zeros in the new pages", zeros);
    line("a byte of the old page", *(u8 *)(low + PAGE - 1));
    return 0;
}
