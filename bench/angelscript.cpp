// Times AddRef and Release through AngelScript's engine of objects of a registered type, of which so many live:
// angelscript [ROUNDS]. A round is a pair of calls for each of 4,096 turns.
#include <angelscript.h>
#include <chrono>
#include <cstdio>
#include <cstdlib>
#include <vector>

namespace {

constexpr int TURNS = 4096;

struct Counter {
    int count = 1;
    int value = 0;
    void add_ref() { count += 1; }
    void release() {
        count -= 1;
        if (count == 0) delete this;
    }
};

// The nanoseconds of a pair of calls among so many objects.
double nanoseconds(asIScriptEngine *engine, const asITypeInfo *type, int living, int rounds) {
    std::vector<Counter *> objects, turns;
    for (int i = 0; i < living; i++) objects.push_back(new Counter);
    for (int i = 0; i < TURNS; i++) turns.push_back(objects[i % living]);
    auto begin = std::chrono::steady_clock::now();
    for (int round = 0; round < rounds; round++) {
        for (Counter *object : turns) {
            engine->AddRefScriptObject(object, type);
            engine->ReleaseScriptObject(object, type);
        }
    }
    std::chrono::duration<double, std::nano> took = std::chrono::steady_clock::now() - begin;
    for (Counter *object : objects) object->release();
    return took.count() / rounds / TURNS;
}

}

int main(int count, char **words) {
    int rounds = count > 1 ? std::atoi(words[1]) : 1000;
    asIScriptEngine *engine = asCreateScriptEngine();
    bool is_well = engine && engine->RegisterObjectType("Counter", 0, asOBJ_REF) >= 0 &&
        engine->RegisterObjectBehaviour("Counter", asBEHAVE_ADDREF, "void f()", asMETHOD(Counter, add_ref), asCALL_THISCALL) >= 0 &&
        engine->RegisterObjectBehaviour("Counter", asBEHAVE_RELEASE, "void f()", asMETHOD(Counter, release), asCALL_THISCALL) >= 0;
    if (!is_well || rounds < 1) return 1;
    const asITypeInfo *type = engine->GetTypeInfoByName("Counter");
    for (int living : {4, 400, 4096}) {
        std::printf("AngelScript %s, %d objects\n", asGetLibraryVersion(), living);
        std::printf("  AddRef and Release: %.1f ns\n", nanoseconds(engine, type, living, rounds));
    }
    engine->ShutDownAndRelease();
    return 0;
}
