// A task of a pool of two threads waits below a lock for a task that it submitted: two such tasks leave no thread to run it.
#include <condition_variable>
#include <deque>
#include <functional>
#include <future>
#include <mutex>
#include <thread>
#include <unistd.h>
static std::mutex queue, state_lock;
static std::condition_variable more;
static std::deque<std::function<void()>> tasks;
static bool is_over;
static int state;
static void submit(std::function<void()> task) {
    std::lock_guard g(queue);
    tasks.push_back(std::move(task));
    more.notify_one();
}
static void work() {
    for (;;) {
        std::function<void()> task;
        {
            std::unique_lock g(queue);
            more.wait(g, [] { return is_over || !tasks.empty(); });
            if (tasks.empty()) return;
            task = std::move(tasks.front());
            tasks.pop_front();
        }
        task();
    }
}
static void outer() {
    std::lock_guard g(state_lock);
    std::promise<int> done;
    submit([&] { done.set_value(1); });
    done.get_future().get();
    state++;
}
static void touch() {
    std::lock_guard g(state_lock);
    state++;
}
int main() {
    std::thread t(work), u(work);
    submit(outer);
    usleep(50000);
    submit(touch);
    usleep(50000);
    {
        std::lock_guard g(queue);
        is_over = true;
        more.notify_all();
    }
    t.join();
    u.join();
}
