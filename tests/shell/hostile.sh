# Damaged stores, clients that mean harm, and requests and sources at random, by tests/hostile.
counted tests/hostile/damage
counted tests/hostile/clients
counted tests/hostile/run "${SEED:-1}" 20000
