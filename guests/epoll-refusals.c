// What the calls on epolls refuse.
#include "epolls.h"

int guest(int count, char **arguments)
{
    struct event event = {IN, 1};
    u64 set = 0;
    i32 ends[2];
    i64 epoll = epoll_create1(CLOSE_ON_EXEC);
    pipe2(ends, 0);
    line("the close flag", fcntl(epoll, F_GETFD, 0));
    answer("create with other flags", epoll_create1(1));
    answer("create with other flags", epoll_create1(NONBLOCK));
    answer("operation 0", epoll_ctl(epoll, 0, ends[0], &event));
    answer("operation 4", epoll_ctl(epoll, 4, ends[0], &event));
    answer("change of what isn't there", epoll_ctl(epoll, CHANGE, ends[0], &event));
    answer("delete of what isn't there", epoll_ctl(epoll, DELETE, ends[0], 0));
    answer("an event that can't be read", epoll_ctl(epoll, ADD, ends[0], (void *)16));
    answer("add", epoll_ctl(epoll, ADD, ends[0], &event));
    answer("add again", epoll_ctl(epoll, ADD, ends[0], &event));
    answer("change to an event that can't be read", epoll_ctl(epoll, CHANGE, ends[0], 0));
    answer("add to no descriptor", epoll_ctl(77, ADD, ends[1], &event));
    answer("add to less than none", epoll_ctl(-1, ADD, ends[1], &event));
    answer("add of no descriptor", epoll_ctl(epoll, ADD, 77, &event));
    answer("add to a pipe", epoll_ctl(ends[0], ADD, ends[1], &event));
    answer("add of itself", epoll_ctl(epoll, ADD, epoll, &event));
    answer("delete without an event", epoll_ctl(epoll, DELETE, ends[0], 0));

    answer("wait for none", epoll_pwait(epoll, &event, 0, 0, 0, 8));
    answer("wait for less than none", epoll_pwait(epoll, &event, -1, 0, 0, 8));
    answer("wait at no descriptor", epoll_pwait(77, &event, 1, 0, 0, 8));
    answer("wait at a pipe", epoll_pwait(ends[0], &event, 1, 0, 0, 8));
    answer("wait with a set of another size", epoll_pwait(epoll, &event, 1, 0, &set, 4));
    answer("the size of no set", epoll_pwait(epoll, &event, 1, 0, 0, 4));
    answer("wait with a set that can't be read", epoll_pwait(epoll, &event, 1, 0, (void *)16, 8));
    interest(epoll, ADD, ends[1], OUT, 5);
    answer("wait with a place that can't be written", epoll_pwait(epoll, (void *)16, 1, 0, 0, 8));
    show_events("it is told still", epoll);

    answer("read", read(epoll, &event, 8));
    answer("write", write(epoll, &event, 8));
    answer("close", close(epoll));
    answer("add to it", epoll_ctl(epoll, ADD, ends[0], &event));
    return 0;
}
