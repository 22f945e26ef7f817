// A detached thread acquires two mutexes in one order, and a static destructor at exit in the other.
#include <mutex>
#include <thread>
#include <unistd.h>
static std::mutex a, b;
struct AtExit {
    ~AtExit() {
        std::lock_guard g(b);
        std::lock_guard h(a);
    }
};
static AtExit at_exit;
static void work() {
    for (;;) {
        {
            std::lock_guard g(a);
            std::lock_guard h(b);
        }
        usleep(200000);
    }
}
int main() {
    std::thread(work).detach();
    usleep(100000);
}
