// Takes each function of the interface once.
#include <wasi/api.h>

#define NAMES(IT) \
    IT(args_get) IT(args_sizes_get) IT(environ_get) IT(environ_sizes_get) IT(clock_res_get) IT(clock_time_get) \
    IT(fd_advise) IT(fd_allocate) IT(fd_close) IT(fd_datasync) IT(fd_fdstat_get) IT(fd_fdstat_set_flags) \
    IT(fd_fdstat_set_rights) IT(fd_filestat_get) IT(fd_filestat_set_size) IT(fd_filestat_set_times) IT(fd_pread) \
    IT(fd_prestat_get) IT(fd_prestat_dir_name) IT(fd_pwrite) IT(fd_read) IT(fd_readdir) IT(fd_renumber) IT(fd_seek) \
    IT(fd_sync) IT(fd_tell) IT(fd_write) IT(path_create_directory) IT(path_filestat_get) IT(path_filestat_set_times) \
    IT(path_link) IT(path_open) IT(path_readlink) IT(path_remove_directory) IT(path_rename) IT(path_symlink) \
    IT(path_unlink_file) IT(poll_oneoff) IT(proc_exit) IT(sched_yield) IT(random_get) IT(sock_accept) IT(sock_recv) \
    IT(sock_send) IT(sock_shutdown)
#define TAKE(NAME) (void (*)(void))__wasi_##NAME,

void (*const functions[])(void) = {NAMES(TAKE)};

int main(int argc, char **argv) {
    functions[argc]();
    return 0;
}
