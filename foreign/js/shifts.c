/* Shifts of 128 bits, which the compiler calls for WebAssembly. This code is tested, and is not proved. */
#include <stdint.h>

typedef unsigned __int128 wide;

static wide joined(uint64_t high, uint64_t low) {
  union {
    uint64_t parts[2];
    wide whole;
  } it = {{low, high}};
  return it.whole;
}

wide __ashlti3(wide value, int count) {
  uint64_t low = (uint64_t)value, high = (uint64_t)(value >> 64);
  if (count & 64) return joined(low << (count & 63), 0);
  return count ? joined(high << count | low >> (64 - count), low << count) : value;
}

wide __lshrti3(wide value, int count) {
  uint64_t low = (uint64_t)value, high = (uint64_t)(value >> 64);
  if (count & 64) return joined(0, high >> (count & 63));
  return count ? joined(high >> count, low >> count | high << (64 - count)) : value;
}
