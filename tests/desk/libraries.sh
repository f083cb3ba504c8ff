# Sourced by the scripts that link C with the libraries: sets `top`, `include` and `libraries`.
# INCLUDE (the header's folder) and LIBRARIES (archives to link) in the environment win over the places where the build puts them.
top=$(cd "$(dirname "$0")/../.." && pwd)
include=${INCLUDE:-$top/include}
libraries=${LIBRARIES:-$top/build/libstellcircle.a}
