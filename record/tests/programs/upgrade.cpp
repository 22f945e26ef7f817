// A shared mutex that is released before it is acquired exclusively.
#include <mutex>
#include <shared_mutex>
#include <thread>
static std::shared_mutex m;
static std::mutex journal;
static int n;
static void work() {
    for (int i = 0; i < 500; i++) {
        {
            std::shared_lock l(m);
            std::lock_guard g(journal);
        }
        std::unique_lock l(m);
        std::lock_guard g(journal);
        n++;
    }
}
int main() {
    std::thread t(work), u(work);
    t.join();
    u.join();
}
