/* The program calls a plugin below its lock, and the plugin's thread calls the program below the plugin's lock. */
#include "program.h"
#include <dlfcn.h>
MUTEX(host);
static void (*work)(void);
static void call_host(void) {
    LOCK(host);
    UNLOCK(host);
}
THREAD(call_plugin) {
    LOCK(host);
    work();
    UNLOCK(host);
    return x;
}
int main(void) {
    pthread_t t, u;
    void *plugin = dlopen("./plugmod.so", RTLD_NOW);
    if (!plugin) return 1;
    work = (void (*)(void))dlsym(plugin, "plug_work");
    start_fn start = (start_fn)dlsym(plugin, "plug_thread");
    ((void (*)(void (*)(void)))dlsym(plugin, "plug_set"))(call_host);
    pthread_create(&t, NULL, call_plugin, NULL);
    usleep(50000);
    pthread_create(&u, NULL, start, NULL);
    pthread_join(t, NULL);
    pthread_join(u, NULL);
    dlclose(plugin);
}
