/* seeds.h: states as runtimes send them, to be changed at random. */
static const char *const seeds[] = {
    "{\"ociVersion\":\"1.0.2-dev\",\"fds\":[\"seccompFd\"],\"pid\":4422,\"metadata\":\"keyretain\",\"state\":{"
    "\"ociVersion\":\"1.0.2-dev\",\"id\":\"g1\",\"status\":\"creating\",\"pid\":4422,\"bundle\":\"/tmp/b\"}}",
    "{\n  \"ociVersion\": \"0.2.0\",\n  \"fds\": [\n    \"seccompFd\"\n  ],\n  \"pid\": 0,\n  \"metadata\": \"\",\n"
    "  \"state\": {\n    \"ociVersion\": \"1.0\",\n    \"id\": \"0a1b\",\n    \"status\": \"running\",\n"
    "    \"pid\": 9\n  }\n}",
    "{\"fds\":[\"x\",\"seccompFd\"],\"y\":[1,-2.5e+3,0,{\"z\":null},true,false,[]],\"state\":{"
    "\"annotations\":{\"a\\\"b\":"
    "\"\\u0041\\\\\\/\\b\\n\"},\"id\":\"a_b+c-d.e\"}}",
};
enum { SEEDS = sizeof seeds / sizeof *seeds };
