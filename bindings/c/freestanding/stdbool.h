/* For the kit's compiler, which comes without headers. */
#define bool _Bool
#define true 1
#define false 0
