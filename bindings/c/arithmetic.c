/* The arithmetic without state: the worked numbers of bandwidths, servers and charges, and the kernel's own charge. */
#include "neddwyrol.h"
#include <inttypes.h>
#include <stdio.h>

int main(void) {
    nd_params half = {4, 8}, third = {3, 10}, over = {9, 8}, tiny = {1, 16777216};
    nd_capacity whole = {ND_UNIT, 0}, most = {996147, 200000}, wrong = {5, 6};
    nd_server server = {2, 10}, late = {2, 8}, last = {1, UINT32_C(4294967290)}, out = {0, 0};
    nd_reading alone = {262144, 262144}, two = {524288, 1048576}, none = {2, 1};
    int64_t z = 0;
    uint64_t charged = 0;
    uint32_t k = 0, fault;

    printf("version %s\n", nd_version() == ND_VERSION ? "as the header" : "of another library");
    printf("abi %s\n", nd_abi() == ND_ABI ? "as the header" : "of another library");
    printf("bandwidths %" PRIu32 " %" PRIu32 "; faults %" PRIu32 " %" PRIu32 " %" PRIu32 "; none %" PRIu32 "\n", nd_bw(half), nd_bw(third),
           nd_params_fault(over), nd_params_fault(tiny), nd_capacity_fault(wrong), nd_bw(over));
    fault = nd_zero_lag(server, third, &z);
    printf("zero lag %" PRIu32 ": %" PRId64 "\n", fault, z);
    fault = nd_woken(late, half, 4, &out);
    printf("woken at 4 %" PRIu32 ": %" PRIu32 " %" PRIu32 "\n", fault, out.budget, out.deadline);
    fault = nd_woken(late, half, 5, &out);
    printf("woken at 5 %" PRIu32 ": %" PRIu32 " %" PRIu32 "\n", fault, out.budget, out.deadline);
    fault = nd_charge(1000, 262144, most, alone, &charged);
    printf("charge %" PRIu32 ": %" PRIu64 "\n", fault, charged);
    uint64_t run = 0;
    fault = nd_exhaustion(800, 262144, most, alone, &run);
    printf("exhaustion %" PRIu32 ": %" PRIu64, fault, run);
    fault = nd_charge((uint32_t)run, 262144, most, alone, &charged);
    printf(" is charged %" PRIu64, charged);
    fault = nd_charge((uint32_t)run - 1, 262144, most, alone, &charged);
    printf(", one less %" PRIu64 "; faults %s", charged, nd_strerror(nd_exhaustion(1, 0, whole, alone, &run)));
    printf(" %s; of a budget of 0 %" PRIu32 "\n", nd_strerror(nd_exhaustion(1, 1, whole, none, &run)), nd_exhaustion(0, 1, whole, two, &run));
    fault = nd_deplete(late, half, 10, &out, &k);
    printf("deplete %" PRIu32 ": %" PRIu32 " recharges, %" PRIu32 " %" PRIu32 "\n", fault, k, out.budget, out.deadline);
    printf("faults %" PRIu32, nd_zero_lag(server, over, &z));
    printf(" %" PRIu32, nd_woken(server, third, UINT32_C(2147483648), &out));
    printf(" %" PRIu32, nd_charge(1, 1, whole, none, &charged));
    printf(" %" PRIu32 "\n", nd_deplete(last, half, 1, &out, &k));
    printf("kept %" PRId64 " %" PRIu64 " %" PRIu32 " %" PRIu32 " %" PRIu32 "\n", z, charged, k, out.budget, out.deadline);
    fault = nd_charge(4, 524288, whole, two, &charged);
    printf("half of the processor is inactive %" PRIu32 ": %" PRIu64 "\n", fault, charged);

    /* A task of 5 ms in 50 ms, alone on its runqueue, runs for 1 ms while extra_bw is 900000: by 6.1 and by 6.18. */
    printf("kernel 6.1 %" PRIu64 "\n", nd_kernel_charge(0x060100, 1000000, 104857, 104857, 104857, 900000, 996147, 269));
    printf("kernel 6.18 %" PRIu64 "\n", nd_kernel_charge(0x061200, 1000000, 104857, 104857, 104857, 900000, 996147, 269));
    printf("kernel, extra_bw below 0 %" PRIu64 "\n", nd_kernel_charge(0x061200, 1000000, 104857, 104857, 104857, UINT64_C(18446744073709551615), 996147, 269));
    return 0;
}
