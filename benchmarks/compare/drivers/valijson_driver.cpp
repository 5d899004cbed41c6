// Judges the tests of a suite's group with valijson over RapidJSON: valijson_driver verdict|errors SUITE.
#include <fstream>
#include <iostream>
#include <iterator>
#include <string>

#include <rapidjson/document.h>

#include <valijson/adapters/rapidjson_adapter.hpp>
#include <valijson/schema.hpp>
#include <valijson/schema_parser.hpp>
#include <valijson/validation_results.hpp>
#include <valijson/validator.hpp>

using valijson::SchemaParser;
using valijson::adapters::RapidJsonAdapter;

// Draft 4 where the schema says so, and else the newest one that valijson knows.
static SchemaParser::Version version_of(const rapidjson::Value &schema)
{
    const bool named = schema.IsObject() && schema.HasMember("$schema") && schema["$schema"].IsString();
    const bool is_4 = named && std::string(schema["$schema"].GetString()).find("draft-04") != std::string::npos;
    return is_4 ? SchemaParser::kDraft4 : SchemaParser::kDraft7;
}

int main(int, char **words)
{
    const bool verdict = std::string(words[1]) == "verdict";
    std::ifstream file(words[2], std::ios::binary);
    const std::string text{std::istreambuf_iterator<char>(file), std::istreambuf_iterator<char>()};
    rapidjson::Document suite;
    if (suite.Parse<rapidjson::kParseIterativeFlag>(text.c_str()).HasParseError()) {
        std::cerr << "the suite isn't JSON\n";
        return 3;
    }
    const rapidjson::Value &group = suite[0];
    valijson::Schema schema;
    try {
        SchemaParser(version_of(group["schema"])).populateSchema(RapidJsonAdapter(group["schema"]), schema);
    } catch (const std::exception &fault) {
        std::cerr << fault.what() << '\n';
        return 3;
    }
    valijson::Validator validator;
    for (const rapidjson::Value &test : group["tests"].GetArray()) {
        valijson::ValidationResults results;
        const bool valid = validator.validate(schema, RapidJsonAdapter(test["data"]), verdict ? nullptr : &results);
        std::cout << (valid ? "valid" : "invalid");
        if (!verdict) {
            std::cout << ' ' << results.numErrors();
            valijson::ValidationResults::Error error;
            if (results.popError(error)) {
                std::cout << ' ';
                for (const std::string &step : error.context) {
                    std::cout << step;
                }
            }
        }
        std::cout << '\n';
    }
}
