# A version serves for one that isn't later and begins with the same numbers, as the header states.
set(PACKAGE_VERSION "@VERSION@")
string(FIND "${PACKAGE_FIND_VERSION}.0." "@SERIES@." _nd_found_at)
if(_nd_found_at EQUAL 0 AND NOT PACKAGE_VERSION VERSION_LESS PACKAGE_FIND_VERSION)
  set(PACKAGE_VERSION_COMPATIBLE TRUE)
endif()
if(PACKAGE_VERSION VERSION_EQUAL PACKAGE_FIND_VERSION)
  set(PACKAGE_VERSION_EXACT TRUE)
endif()
