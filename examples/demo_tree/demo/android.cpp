extern "C" int android_version() { return 14; }
