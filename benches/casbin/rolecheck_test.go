// One role check of a general role-only library, Casbin, with 20 rules: the yardstick for the crown's lazy question.
package rolecheck

import (
	"fmt"
	"testing"

	"github.com/casbin/casbin"
	"github.com/casbin/casbin/model"
)

// Users have roles, roles have rights on objects.
const text = `
[request_definition]
r = sub, obj, act
[policy_definition]
p = sub, obj, act
[role_definition]
g = _, _
[policy_effect]
e = some(where (p.eft == allow))
[matchers]
m = g(r.sub, p.sub) && r.obj == p.obj && r.act == p.act
`

// An enforcer with so many rules, one a role; Ana has the first role, Ben the last.
func enforcer(b *testing.B, rules int) *casbin.Enforcer {
	m, err := model.NewModelFromString(text)
	if err != nil {
		b.Fatal(err)
	}
	e, err := casbin.NewEnforcer(m)
	if err != nil {
		b.Fatal(err)
	}
	for i := 0; i < rules; i++ {
		e.AddPolicy(fmt.Sprintf("role%d", i), fmt.Sprintf("object%d", i), "read")
	}
	e.AddGroupingPolicy("ana", "role0")
	e.AddGroupingPolicy("ben", fmt.Sprintf("role%d", rules-1))
	return e
}

// Asks the same question over and over.
func run(b *testing.B, who, what string) {
	e := enforcer(b, 20)
	b.ResetTimer()
	for i := 0; i < b.N; i++ {
		e.Enforce(who, what, "read")
	}
}

func BenchmarkFirstRule(b *testing.B) { run(b, "ana", "object0") }
func BenchmarkLastRule(b *testing.B)  { run(b, "ben", "object19") }
func BenchmarkDenied(b *testing.B)    { run(b, "ana", "object5") }
