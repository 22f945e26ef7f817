// A recursive mutex that is entered again below a plain one, always with the recursive one first.
#include <mutex>
#include <thread>
static std::recursive_mutex r;
static std::mutex p;
static int n;
static void enter() {
    std::lock_guard g(r);
    n++;
}
static void one() {
    std::lock_guard g(r);
    std::lock_guard h(p);
    enter();
}
static void two() {
    std::lock_guard g(r);
    enter();
    std::lock_guard h(p);
    enter();
}
int main() {
    std::thread t(one), u(two);
    t.join();
    u.join();
}
