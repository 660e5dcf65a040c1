// All of bitm for C++: the headers in bitm/.
#include <bitm/bitm.hpp>
