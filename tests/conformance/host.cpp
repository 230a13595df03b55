// A host on AngelScript's engine that takes the requests of ashd as lines and replies as ashd does, without sequence numbers.
// It registers what ashd registers: the type Counter, of which `--counters N` are free, and the functions tally and total.
// It stores nothing. `globals NAME` lists a module's globals, and `whole NAME GLOBAL` writes one with all that it leads to.
#define AS_USE_NAMESPACE
#include <angelscript.h>
#include <angelscript/scriptarray.h>
#include <cstdint>
#include <cstdio>
#include <cstdlib>
#include <cstring>
#include <map>
#include <sstream>
#include <string>
#include <vector>

using namespace AngelScript;

namespace {

constexpr int LINES_OF_A_RUN = 200'000;

long pool = 0, made = 0, lines_left = 0;
std::vector<long> dropped;
std::string messages;

void raise(const std::string &name) { asGetActiveContext()->SetException(name.c_str()); }

struct Counter {
    int count = 1, value = 0;
    long number = 0;
    void add_ref() { count += 1; }
    void release() {
        if (--count > 0) return;
        dropped.push_back(number);
        delete this;
    }
    int add(int more) { return value = int(unsigned(value) + unsigned(more)); }
    void fail(int code) { raise("Raised " + std::to_string(code & 0xffff)); }
    static Counter *make(int value) {
        if (made == pool) {
            raise("PoolEmpty");
            return nullptr;
        }
        auto counter = new Counter;
        counter->value = value;
        counter->number = ++made;
        return counter;
    }
};

int tallied = 0;
int tally(int more) { return tallied = int(unsigned(tallied) + unsigned(more)); }
int total() { return tallied; }

void keep_message(const asSMessageInfo *message, void *) {
    if (message->type != asMSGTYPE_ERROR) return;
    messages += " | " + std::to_string(message->row) + ":" + std::to_string(message->col) + " " + message->message;
}

void count_line(asIScriptContext *context, void *) {
    if (--lines_left <= 0) context->Abort();
}

bool behaves(asIScriptEngine *engine, asEBehaviours what, const char *head, const asSFuncPtr &function, int how) {
    return engine->RegisterObjectBehaviour("Counter", what, head, function, how) >= 0;
}

bool register_all(asIScriptEngine *engine) {
    return engine->RegisterObjectType("Counter", 0, asOBJ_REF) >= 0 &&
        behaves(engine, asBEHAVE_ADDREF, "void f()", asMETHOD(Counter, add_ref), asCALL_THISCALL) &&
        behaves(engine, asBEHAVE_RELEASE, "void f()", asMETHOD(Counter, release), asCALL_THISCALL) &&
        behaves(engine, asBEHAVE_FACTORY, "Counter@ f(int)", asFUNCTION(Counter::make), asCALL_CDECL) &&
        engine->RegisterObjectMethod("Counter", "int add(int)", asMETHOD(Counter, add), asCALL_THISCALL) >= 0 &&
        engine->RegisterObjectMethod("Counter", "void fail(int)", asMETHOD(Counter, fail), asCALL_THISCALL) >= 0 &&
        engine->RegisterObjectProperty("Counter", "int value", asOFFSET(Counter, value)) >= 0 &&
        engine->RegisterGlobalFunction("int tally(int)", asFUNCTION(tally), asCALL_CDECL) >= 0 &&
        engine->RegisterGlobalFunction("int total()", asFUNCTION(total), asCALL_CDECL) >= 0;
}

bool is_wide(int type) { return type == asTYPEID_INT64 || type == asTYPEID_UINT64; }
bool is_signed(int type) { return type == asTYPEID_INT32 || type == asTYPEID_INT64; }
bool is_integer(int type) { return is_wide(type) || is_signed(type) || type == asTYPEID_UINT32; }

// The value of a primitive type at an address.
std::string primitive(const void *at, int type) {
    switch (type) {
    case asTYPEID_BOOL: return *static_cast<const bool *>(at) ? "true" : "false";
    case asTYPEID_INT32: return std::to_string(*static_cast<const int32_t *>(at));
    case asTYPEID_UINT32: return std::to_string(*static_cast<const uint32_t *>(at));
    case asTYPEID_INT64: return std::to_string(*static_cast<const int64_t *>(at));
    case asTYPEID_UINT64: return std::to_string(*static_cast<const uint64_t *>(at));
    default: return "?";
    }
}

// What a place holds, with all that it leads to: each object when it is met first, and its place in that order later.
std::string whole(asIScriptEngine *engine, void *at, int type, std::map<void *, size_t> &met) {
    if (!(type & asTYPEID_MASK_OBJECT)) return primitive(at, type);
    void *object = type & asTYPEID_OBJHANDLE ? *static_cast<void **>(at) : at;
    if (!object) return "null";
    auto found = met.find(object);
    if (found != met.end()) return "#" + std::to_string(found->second);
    met.emplace(object, met.size() + 1);
    if (type & asTYPEID_SCRIPTOBJECT) {
        auto script = static_cast<asIScriptObject *>(object);
        std::string text = std::string(script->GetObjectType()->GetName()) + "{";
        for (asUINT field = 0; field < script->GetPropertyCount(); field++) {
            text += std::string(" ") + script->GetPropertyName(field) + " " +
                whole(engine, script->GetAddressOfProperty(field), script->GetPropertyTypeId(field), met);
        }
        return text + " }";
    }
    if (type & asTYPEID_TEMPLATE) {
        auto array = static_cast<CScriptArray *>(object);
        std::string text = "array{";
        for (asUINT index = 0; index < array->GetSize(); index++) {
            text += " " + whole(engine, array->At(index), array->GetElementTypeId(), met);
        }
        return text + " }";
    }
    return "Counter{ " + std::to_string(static_cast<Counter *>(object)->value) + " }";
}

std::string exception_name(const char *text) {
    static const std::map<std::string, std::string> names = {
        {"Null pointer access", "NullPointerAccess"},
        {"Divide by zero", "DivideByZero"},
        {"Overflow in integer division", "DivideOverflow"},
        {"Stack overflow", "StackOverflow"},
        {"Index out of bounds", "IndexOutOfBounds"},
        {"Too large array size", "ArrayLimit"},
    };
    auto found = names.find(text);
    return found == names.end() ? text : found->second;
}

// The script's function in which an exception was raised, as ashd names it. A stub of the engine is no frame of ashd's.
std::string frame_name(asIScriptContext *context) {
    for (asUINT level = 0; level < context->GetCallstackSize(); level++) {
        const asIScriptFunction *function = context->GetFunction(level);
        if (!function || !*function->GetName()) return "(init)";
        if (*function->GetName() == '$' || function->GetFuncType() == asFUNC_SYSTEM) continue;
        const char *of = function->GetObjectName();
        return of ? std::string(of) + "." + function->GetName() : function->GetName();
    }
    return "(init)";
}

std::string with_dropped(asIScriptEngine *engine, std::string reply) {
    engine->GarbageCollect(asGC_FULL_CYCLE);
    if (!dropped.empty()) reply += " dropped";
    for (long number : dropped) reply += " " + std::to_string(number);
    dropped.clear();
    return reply;
}

std::string ending(asIScriptContext *context, int status) {
    if (status == asEXECUTION_ABORTED) return "aborted";
    if (status != asEXECUTION_EXCEPTION) return "stopped " + std::to_string(status);
    return "exception " + exception_name(context->GetExceptionString()) + " " + frame_name(context) + " " +
        std::to_string(context->GetExceptionLineNumber());
}

std::string load(asIScriptEngine *engine, asIScriptContext *context, const std::string &name, size_t length) {
    std::string source(length + 1, '\0');
    if (std::fread(source.data(), 1, length + 1, stdin) != length + 1) return "refused";
    if (engine->GetModule(name.c_str())) return "refused ModuleTaken";
    messages.clear();
    asIScriptModule *module = engine->GetModule(name.c_str(), asGM_ALWAYS_CREATE);
    module->AddScriptSection(name.c_str(), source.data(), length);
    int status = module->Build();
    if (status < 0) {
        module->Discard();
        return "refused" + (messages.empty() ? " " + std::to_string(status) : messages);
    }
    lines_left = LINES_OF_A_RUN;
    if (module->ResetGlobalVars(context) >= 0) return with_dropped(engine, "ok");
    std::string reply = ending(context, context->GetState());
    context->Unprepare();
    module->Discard();
    return with_dropped(engine, reply);
}

// Whether a word is a value of a type, and is handed over.
bool hand_over(asIScriptContext *context, asUINT place, int type, const std::string &word) {
    if (type == asTYPEID_BOOL) return (word == "true" || word == "false") && context->SetArgByte(place, word == "true") >= 0;
    if (word == "true" || word == "false") return false;
    bool is_negative = word[0] == '-';
    __int128 number = 0;
    for (char digit : word.substr(is_negative)) number = number * 10 + (digit - '0');
    if (is_negative) number = -number;
    int width = is_wide(type) ? 64 : 32;
    __int128 least = is_signed(type) ? -(__int128(1) << (width - 1)) : 0, past = __int128(1) << (width - is_signed(type));
    if (number < least || number >= past) return false;
    if (is_wide(type)) context->SetArgQWord(place, asQWORD(number));
    else context->SetArgDWord(place, asDWORD(number));
    return true;
}

std::string call(asIScriptEngine *engine, asIScriptContext *context, const std::vector<std::string> &words) {
    asIScriptModule *module = engine->GetModule(words[1].c_str());
    if (!module) return "refused 401 NoModule";
    asIScriptFunction *function = module->GetFunctionByName(words[2].c_str());
    if (!function) return "refused 403 NoFunction";
    int result = function->GetReturnTypeId();
    bool is_callable = result == asTYPEID_VOID || result == asTYPEID_BOOL || is_integer(result);
    for (asUINT place = 0; place < function->GetParamCount(); place++) {
        int type = 0;
        function->GetParam(place, &type);
        is_callable = is_callable && (type == asTYPEID_BOOL || is_integer(type));
    }
    if (!is_callable) return "refused 404 NotCallable";
    if (function->GetParamCount() != words.size() - 3) return "refused 405 BadArguments";
    if (context->Prepare(function) < 0) return "refused";
    for (asUINT place = 0; place < function->GetParamCount(); place++) {
        int type = 0;
        function->GetParam(place, &type);
        if (!hand_over(context, place, type, words[place + 3])) return "refused 405 BadArguments";
    }
    lines_left = LINES_OF_A_RUN;
    int status = context->Execute();
    std::string reply = "ok";
    if (status != asEXECUTION_FINISHED) reply = ending(context, status);
    else if (result != asTYPEID_VOID) reply += " " + primitive(context->GetAddressOfReturnValue(), result);
    context->Unprepare();
    return with_dropped(engine, reply);
}

std::string discard(asIScriptEngine *engine, const std::string &name) {
    asIScriptModule *module = engine->GetModule(name.c_str());
    if (!module) return "refused 401 NoModule";
    module->Discard();
    return with_dropped(engine, "ok");
}

std::string globals(asIScriptEngine *engine, const std::string &name) {
    asIScriptModule *module = engine->GetModule(name.c_str());
    std::string reply = "ok";
    for (asUINT index = 0; module && index < module->GetGlobalVarCount(); index++) {
        const char *global = nullptr;
        module->GetGlobalVar(index, &global);
        reply += std::string(" ") + global;
    }
    return reply;
}

std::string global(asIScriptEngine *engine, const std::string &name, const std::string &which, bool is_whole) {
    asIScriptModule *module = engine->GetModule(name.c_str());
    if (!module) return "refused 401 NoModule";
    int index = module->GetGlobalVarIndexByName(which.c_str()), type = 0;
    if (index < 0) return "refused 406 NoGlobal";
    module->GetGlobalVar(index, nullptr, nullptr, &type);
    std::map<void *, size_t> met;
    // the address of an object that a global has is that of the object itself
    std::string text = whole(engine, module->GetAddressOfGlobalVar(index), type, met);
    return "ok " + (is_whole || met.empty() ? text : "object");
}

std::string reply_to(asIScriptEngine *engine, asIScriptContext *context, const std::vector<std::string> &words) {
    if (words.size() == 3 && words[0] == "load") return load(engine, context, words[1], std::atoi(words[2].c_str()));
    if (words.size() >= 3 && words[0] == "call") return call(engine, context, words);
    if (words.size() == 2 && words[0] == "discard") return discard(engine, words[1]);
    if (words.size() == 2 && words[0] == "globals") return globals(engine, words[1]);
    if (words.size() == 3 && words[0] == "get") return global(engine, words[1], words[2], false);
    if (words.size() == 3 && words[0] == "whole") return global(engine, words[1], words[2], true);
    return "refused 601 BadRequest";
}

}

int main(int count, char **words) {
    pool = count > 1 ? std::atol(words[1]) : 0;
    asIScriptEngine *engine = asCreateScriptEngine();
    if (!engine) return 1;
    engine->SetMessageCallback(asFUNCTION(keep_message), nullptr, asCALL_CDECL);
    engine->SetEngineProperty(asEP_INIT_GLOBAL_VARS_AFTER_BUILD, false);
    engine->SetEngineProperty(asEP_MAX_CALL_STACK_SIZE, 10'000);
    RegisterScriptArray(engine, false);
    if (!register_all(engine)) return 1;
    asIScriptContext *context = engine->CreateContext();
    context->SetLineCallback(asFUNCTION(count_line), nullptr, asCALL_CDECL);
    static char line[4200];
    while (std::fgets(line, sizeof line, stdin)) {
        std::istringstream parts(line);
        std::vector<std::string> asked;
        for (std::string word; parts >> word;) asked.push_back(word);
        if (asked.empty()) continue;
        std::printf("%s\n", reply_to(engine, context, asked).c_str());
        std::fflush(stdout);
    }
    context->Release();
    engine->ShutDownAndRelease();
}
