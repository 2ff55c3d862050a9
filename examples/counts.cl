// Counts the work-items by what is left of their ids modulo 4. Two items that meet in one count race.
kernel void count(global uint *counts)
{
    uint i = get_global_id(0);
    counts[i % 4u] += 1;
}
