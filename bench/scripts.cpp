#define AS_USE_NAMESPACE
#include <angelscript.h>
#include <angelscript/scriptarray.h>
#include <chrono>
#include <cstdio>
#include <cstdlib>
#include <fstream>
#include <sstream>
#include <string>
using namespace AngelScript;
struct Counter {
    int count = 1; int value = 0;
    void add_ref() { count += 1; }
    void release() { if (--count == 0) delete this; }
    int add(int more) { value += more; return value; }
    static Counter *make(int value) { auto c = new Counter; c->value = value; return c; }
};
static void message(const asSMessageInfo *m, void *) { std::fprintf(stderr, "%d:%d %s\n", m->row, m->col, m->message); }
int main(int n, char **words) {
    asIScriptEngine *engine = asCreateScriptEngine();
    engine->SetMessageCallback(asFUNCTION(message), nullptr, asCALL_CDECL);
    RegisterScriptArray(engine, false);
    engine->RegisterObjectType("Counter", 0, asOBJ_REF);
    engine->RegisterObjectBehaviour("Counter", asBEHAVE_ADDREF, "void f()", asMETHOD(Counter, add_ref), asCALL_THISCALL);
    engine->RegisterObjectBehaviour("Counter", asBEHAVE_RELEASE, "void f()", asMETHOD(Counter, release), asCALL_THISCALL);
    engine->RegisterObjectBehaviour("Counter", asBEHAVE_FACTORY, "Counter@ f(int)", asFUNCTION(Counter::make), asCALL_CDECL);
    engine->RegisterObjectMethod("Counter", "int add(int)", asMETHOD(Counter, add), asCALL_THISCALL);
    std::stringstream text; text << std::ifstream(words[1]).rdbuf(); std::string source = text.str();
    asIScriptModule *module = engine->GetModule("m", asGM_ALWAYS_CREATE);
    module->AddScriptSection("m", source.data(), source.size());
    if (module->Build() < 0) return 1;
    asIScriptContext *context = engine->CreateContext();
    asIScriptFunction *function = module->GetFunctionByName(words[2]);
    int result = 0; double took = 0;
    for (int turn = 0; turn < 2; turn++) {
        context->Prepare(function);
        context->SetArgDWord(0, std::atoi(words[3]));
        auto begin = std::chrono::steady_clock::now();
        if (context->Execute() != asEXECUTION_FINISHED) return 2;
        took = std::chrono::duration<double>(std::chrono::steady_clock::now() - begin).count();
        result = context->GetReturnDWord();
    }
    std::printf("%s %d %.6f\n", words[2], result, took);
}
