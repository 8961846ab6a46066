/* Runs a program as a container's own filter would: the calls that are named are refused (EPERM).
   Words: names of calls, with commas between (mount, unshare, namespaces, ptrace, mknod), and the program with its words. */
#define _GNU_SOURCE
#include <errno.h>
#include <linux/audit.h>
#include <linux/filter.h>
#include <linux/seccomp.h>
#include <sched.h>
#include <stddef.h>
#include <stdio.h>
#include <string.h>
#include <sys/prctl.h>
#include <sys/syscall.h>
#include <unistd.h>

static struct sock_filter filter[64];
static unsigned short length;

static void add(unsigned short code, unsigned yes, unsigned no, unsigned value) {
    filter[length++] = (struct sock_filter){code, yes, no, value};
}

static void refuse(unsigned call) {
    add(BPF_JMP | BPF_JEQ | BPF_K, 0, 1, call);
    add(BPF_RET | BPF_K, 0, 0, SECCOMP_RET_ERRNO | EPERM);
}

/* A clone that would make a namespace. Of clone3, which hides its flags, a system says that it lacks it. */
static void refuse_namespaces(void) {
    add(BPF_JMP | BPF_JEQ | BPF_K, 0, 1, SYS_clone3);
    add(BPF_RET | BPF_K, 0, 0, SECCOMP_RET_ERRNO | ENOSYS);
    add(BPF_JMP | BPF_JEQ | BPF_K, 0, 4, SYS_clone);
    add(BPF_LD | BPF_W | BPF_ABS, 0, 0, offsetof(struct seccomp_data, args[0]));
    add(BPF_JMP | BPF_JSET | BPF_K, 0, 1, CLONE_NEWUSER | CLONE_NEWNS | CLONE_NEWPID | CLONE_NEWUTS | CLONE_NEWIPC | CLONE_NEWNET | CLONE_NEWCGROUP);
    add(BPF_RET | BPF_K, 0, 0, SECCOMP_RET_ERRNO | EPERM);
    add(BPF_LD | BPF_W | BPF_ABS, 0, 0, offsetof(struct seccomp_data, nr));
}

int main(int count, char **words) {
    if (count < 3) return 2;
    add(BPF_LD | BPF_W | BPF_ABS, 0, 0, offsetof(struct seccomp_data, nr));
    for (char *name = strtok(words[1], ","); name; name = strtok(0, ",")) {
        if (!strcmp(name, "mount")) refuse(SYS_mount), refuse(SYS_umount2), refuse(SYS_fsopen), refuse(SYS_move_mount);
        else if (!strcmp(name, "unshare")) refuse(SYS_unshare), refuse(SYS_setns);
        else if (!strcmp(name, "namespaces")) refuse_namespaces();
        else if (!strcmp(name, "ptrace")) refuse(SYS_ptrace), refuse(SYS_process_vm_readv);
        else if (!strcmp(name, "mknod")) refuse(SYS_mknod), refuse(SYS_mknodat);
        else return fprintf(stderr, "confined: %s?\n", name), 2;
    }
    add(BPF_RET | BPF_K, 0, 0, SECCOMP_RET_ALLOW);
    struct sock_fprog program = {length, filter};
    if (prctl(PR_SET_NO_NEW_PRIVS, 1, 0, 0, 0) || prctl(PR_SET_SECCOMP, SECCOMP_MODE_FILTER, &program)) return perror("confined"), 2;
    execvp(words[2], words + 2);
    return perror(words[2]), 127;
}
