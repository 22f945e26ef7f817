// An atomic flag keeps the two orders apart.
#include <atomic>
#include <mutex>
#include <thread>
static std::mutex a, b;
static std::atomic<bool> is_done{false};
static void one() {
    {
        std::lock_guard g(a);
        std::lock_guard h(b);
    }
    is_done = true;
}
static void two() {
    while (!is_done) std::this_thread::yield();
    std::lock_guard g(b);
    std::lock_guard h(a);
}
int main() {
    std::thread t(one), u(two);
    t.join();
    u.join();
}
