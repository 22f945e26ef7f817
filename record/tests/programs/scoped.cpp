// std::scoped_lock and std::lock of two mutexes in both orders: they release what they have before they wait.
#include <mutex>
#include <thread>
static std::mutex a, b;
static int n;
static void one() {
    for (int i = 0; i < 2000; i++) {
        std::scoped_lock both(a, b);
        n++;
    }
}
static void two() {
    for (int i = 0; i < 2000; i++) {
        std::scoped_lock both(b, a);
        n++;
    }
}
static void three() {
    for (int i = 0; i < 2000; i++) {
        std::unique_lock x(a, std::defer_lock), y(b, std::defer_lock);
        std::lock(y, x);
        n++;
    }
}
int main() {
    std::thread t(one), u(two), v(three);
    t.join();
    u.join();
    v.join();
}
