// The samples of request Five, as crates/transport/specs/Samples.antt has them. Each is one test,
// of the library and of the reference.
#ifndef STANDING_SAMPLES_H
#define STANDING_SAMPLES_H

void test_samples();

#endif
