/* What the script's numbers stand for. */
#include "play_on_libpth.h"

struct thread *threads[NUMBERS];
struct event *events[NUMBERS];
struct port ports[NUMBERS];
struct message *messages[NUMBERS];
struct object objects[NUMBERS];
int thread_count, event_count, port_count, message_count, object_count;
long v[LOCKS];
pth_mutex_t mutexes[LOCKS];
pth_rwlock_t rwlocks[LOCKS];
pth_cond_t conditions[LOCKS];
pth_barrier_t barriers[LOCKS];
pth_once_t controls[LOCKS];
struct key keys[PTH_KEY_MAX];
struct thread *last_ended;
struct thread *last_turn;
struct thread *victim;
int main_is_alone;
int exit_is_librarys;
int turns;

int next_number(int *count, struct thread *t) {
    if (*count == NUMBERS - 1) give_up(t->at, "more numbers than this tool has");
    return ++*count;
}

struct thread *known_thread(long n) {
    return n >= 1 && n <= thread_count && threads[n]->stage != GONE ? threads[n] : NULL;
}

struct event *known_event(long n) { return n >= 1 && n <= event_count && events[n]->is_live ? events[n] : NULL; }

struct port *known_port(long n) { return n >= 1 && n <= port_count && ports[n].port != NULL ? &ports[n] : NULL; }

struct object *known_object(long n) { return n >= 1 && n <= object_count && objects[n].is_live ? &objects[n] : NULL; }

int is_lock(long n) { return n >= 0 && n < LOCKS; }
