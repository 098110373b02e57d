// What the tests of modules have in common.

// One check: a function that throws where something is wrong.
export async function check(name, run) {
    try {
        await run();
        console.log(`ok      page: ${name}`);
    } catch (why) {
        console.log(`FAILED  page: ${name}: ${why.message}`);
        process.exitCode = 1;
    }
}
