// std::scoped_lock(a, b) below c, which may wait for b; and b, then c.
#include <mutex>
#include <thread>
#include <unistd.h>
static std::mutex a, b, c;
static int n;
static void one() {
    std::lock_guard k(c);
    std::scoped_lock both(a, b);
    n++;
}
static void two() {
    usleep(100000);
    std::lock_guard k(b);
    std::lock_guard m(c);
    n++;
}
int main() {
    std::thread t(one), u(two);
    t.join();
    u.join();
}
