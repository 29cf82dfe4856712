#include <vector>

int main() {
  std::vector<int> v;
  v.push_back(1);
  auto it = v.begin();
  v.push_back(2);
  int x = *it;
}
