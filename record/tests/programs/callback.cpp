// Three locks in a circle through callbacks: registry, session; session, store; store, registry.
#include <functional>
#include <mutex>
#include <thread>
#include <unistd.h>
struct Session {
    std::mutex m;
    int value = 0;
};
struct Store {
    std::mutex m;
    std::function<void()> changed;
};
static std::mutex registry;
static Store store;
static Session *session = new Session;
static void notify() { std::lock_guard g(registry); }
static void flush() {
    std::lock_guard g(store.m);
    if (store.changed) store.changed();
}
static void open_session() {
    std::lock_guard g(registry);
    std::lock_guard h(session->m);
    session->value++;
}
static void save_session() {
    usleep(50000);
    std::lock_guard g(session->m);
    std::lock_guard h(store.m);
    session->value++;
}
static void flush_late() {
    usleep(100000);
    flush();
}
int main() {
    store.changed = notify;
    std::thread t(open_session), u(save_session), v(flush_late);
    t.join();
    u.join();
    v.join();
}
